/* Refuses a negative number by an exception, which its caller gets. */
JNIEXPORT jint JNICALL Java_Check_uncaught(JNIEnv *env, jclass cls, jint n)
{
    if (n < 0) {
        jclass class = (*env)->FindClass(env, "java/lang/RuntimeException");
        jint thrown = (*env)->ThrowNew(env, class, "negative");
        if (thrown != 0) {
            (*env)->FatalError(env, "no exception can be thrown");
        }
    }
    return n;
}
