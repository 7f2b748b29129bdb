/* Adds up the numbers of an array by a copy of them, which is given up after that. */
JNIEXPORT jint JNICALL Java_A_total(JNIEnv *env, jclass cls, jintArray numbers)
{
    jint length = (*env)->GetArrayLength(env, numbers);
    jint *copy = (*env)->GetIntArrayElements(env, numbers, NULL);
    uint32_t total = 0u;
    if (copy != NULL) {
        uint32_t i = 0u;
        while (i < (uint32_t)length) {
            total = total + (uint32_t)copy[i];
            i = i + 1u;
        }
        (*env)->ReleaseIntArrayElements(env, numbers, copy, JNI_ABORT);
    }
    put_jint((jint)total);
    return (jint)total;
}
