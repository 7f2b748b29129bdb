/* Counts its calls in a static field. */
JNIEXPORT void JNICALL Java_Counter_next(JNIEnv *env, jclass cls)
{
    jfieldID count = (*env)->GetStaticFieldID(env, cls, "count", "I");
    jint calls = (*env)->GetStaticIntField(env, cls, count);
    (*env)->SetStaticIntField(env, cls, count, (jint)((uint32_t)calls + 1u));
    put_jint(calls);
    return;
}
