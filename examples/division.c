/* A division by zero stops the machine with trap 1. */
JNIEXPORT void JNICALL Java_A_division(JNIEnv *env, jclass cls, jint divisor)
{
    put_jint((jint)(100u / (uint32_t)divisor));
    return;
}
