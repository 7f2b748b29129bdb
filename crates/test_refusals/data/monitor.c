/* Adds to a static field that threads share, and owns the monitor of the class from the reading to the writing: a thread whose turn comes in between
   waits, and nothing is lost. */
JNIEXPORT void JNICALL Java_Counter_add(JNIEnv *env, jclass cls, jint amount)
{
    jfieldID sum = (*env)->GetStaticFieldID(env, cls, "sum", "I");
    jint entered = (*env)->MonitorEnter(env, cls);
    if (entered == 0) {
        jint old = (*env)->GetStaticIntField(env, cls, sum);
        (*env)->SetStaticIntField(env, cls, sum, (jint)((uint32_t)old + (uint32_t)amount));
        (*env)->MonitorExit(env, cls);
    }
    return;
}

JNIEXPORT void JNICALL Java_Counter_show(JNIEnv *env, jclass cls)
{
    jfieldID sum = (*env)->GetStaticFieldID(env, cls, "sum", "I");
    jint now = (*env)->GetStaticIntField(env, cls, sum);
    put_jint(now);
    return;
}
