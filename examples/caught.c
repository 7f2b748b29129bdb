/* Throws an exception, looks at it, and goes on without it. */
JNIEXPORT jint JNICALL Java_Check_caught(JNIEnv *env, jclass cls)
{
    jclass class = (*env)->FindClass(env, "java/lang/RuntimeException");
    jint thrown = (*env)->ThrowNew(env, class, "no");
    jthrowable exception = (*env)->ExceptionOccurred(env);
    (*env)->ExceptionClear(env);
    if (exception != NULL) {
        put_jint(thrown);
    }
    return thrown;
}
