/* Looks for a class that isn't there: the exception is pending until the method returns. */
JNIEXPORT jint JNICALL Java_A_hasB(JNIEnv *env, jclass cls)
{
    jclass wanted = (*env)->FindClass(env, "B");
    if (wanted == NULL) {
        return 0;
    }
    return 1;
}
