/* The greatest common divisor of two numbers, by Euclid's algorithm. */
JNIEXPORT void JNICALL Java_A_divisor(JNIEnv *env, jclass cls, jint first, jint second)
{
    uint32_t a = (uint32_t)first;
    uint32_t b = (uint32_t)second;
    while (b != 0u) {
        uint32_t rest = a % b;
        a = b;
        b = rest;
    }
    put_jint((jint)a);
    return;
}
