/* The sum of the products of two arrays' numbers, each with the one in its place. Neither array is copied, nor moved meanwhile. */
JNIEXPORT jint JNICALL Java_A_product(JNIEnv *env, jclass cls, jintArray left, jintArray right)
{
    jint length = (*env)->GetArrayLength(env, left);
    uint32_t sum = 0u;
    jint *a = (*env)->GetPrimitiveArrayCritical(env, left, NULL);
    if (a != NULL) {
        jint *b = (*env)->GetPrimitiveArrayCritical(env, right, NULL);
        if (b != NULL) {
            uint32_t i = 0u;
            while (i < (uint32_t)length) {
                sum = sum + (uint32_t)a[i] * (uint32_t)b[i];
                i = i + 1u;
            }
            (*env)->ReleasePrimitiveArrayCritical(env, right, b, JNI_ABORT);
        }
        (*env)->ReleasePrimitiveArrayCritical(env, left, a, JNI_ABORT);
    }
    put_jint((jint)sum);
    return (jint)sum;
}
