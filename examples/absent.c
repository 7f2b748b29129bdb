/* The lengths of two arrays, or -1 where there is none. */
JNIEXPORT void JNICALL Java_A_absent(JNIEnv *env, jclass cls, jintArray first, jintArray second)
{
    if (first == NULL) {
        put_jint((jint)~0u);
    } else {
        jint length = (*env)->GetArrayLength(env, first);
        put_jint(length);
    }
    if (second != NULL) {
        jint size = (*env)->GetArrayLength(env, second);
        put_jint(size);
    } else {
        put_jint((jint)~0u);
    }
    return;
}
