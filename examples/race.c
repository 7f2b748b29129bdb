/* Adds to a static field that threads share: reads it, and writes it some steps later. What another thread adds in between is lost; the schedule says
   whether that happens. */
JNIEXPORT void JNICALL Java_Counter_add(JNIEnv *env, jclass cls, jint amount)
{
    jfieldID sum = (*env)->GetStaticFieldID(env, cls, "sum", "I");
    jint old = (*env)->GetStaticIntField(env, cls, sum);
    (*env)->SetStaticIntField(env, cls, sum, (jint)((uint32_t)old + (uint32_t)amount));
    return;
}

JNIEXPORT void JNICALL Java_Counter_show(JNIEnv *env, jclass cls)
{
    jfieldID sum = (*env)->GetStaticFieldID(env, cls, "sum", "I");
    jint now = (*env)->GetStaticIntField(env, cls, sum);
    put_jint(now);
    return;
}
