/* Prints the length of an array, and then a number made from it. */
JNIEXPORT void JNICALL Java_A_f(JNIEnv *env, jclass cls, jintArray a, jint times)
{
    jint n = (*env)->GetArrayLength(env, a);
    put_jint(n);
    jint product = (jint)((uint32_t)n * (uint32_t)times);
    put_jint(product);
    return;
}
