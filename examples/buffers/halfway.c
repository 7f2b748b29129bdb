/* Fills an array with squares, and lets others see the first half of them before the rest: JNI_COMMIT copies back and keeps the copy. */
JNIEXPORT void JNICALL Java_A_halfway(JNIEnv *env, jclass cls, jshortArray numbers)
{
    jint length = (*env)->GetArrayLength(env, numbers);
    jboolean copied = JNI_FALSE;
    jshort *buffer = (*env)->GetShortArrayElements(env, numbers, &copied);
    if (buffer != NULL) {
        uint32_t i = 0u;
        while (i < (uint32_t)length) {
            if (i == (uint32_t)length / 2u) {
                (*env)->ReleaseShortArrayElements(env, numbers, buffer, JNI_COMMIT);
            }
            buffer[i] = (jint)(i * i);
            i = i + 1u;
        }
        (*env)->ReleaseShortArrayElements(env, numbers, buffer, 0);
        put_jint((jint)copied);
    }
    return;
}
