/* Turns a part of an array round: it is read into an array of C, its numbers are exchanged from both ends, and it is written back. A part that the
   array of C has no room for is left as it is; where the array has no such part, the exception is the caller's. */
JNIEXPORT void JNICALL Java_A_reverse(JNIEnv *env, jclass cls, jintArray numbers, jint start, jint count)
{
    if (count > 8) {
        return;
    }
    jint part[8] = {0};
    (*env)->GetIntArrayRegion(env, numbers, start, count, part);
    jboolean failed = (*env)->ExceptionCheck(env);
    if (failed == JNI_FALSE) {
        uint32_t left = 0u;
        uint32_t right = (uint32_t)count;
        while (left + 1u < right) {
            right = right - 1u;
            jint kept = part[left];
            part[left] = part[right];
            part[right] = kept;
            left = left + 1u;
        }
        (*env)->SetIntArrayRegion(env, numbers, start, count, part);
    }
    return;
}
