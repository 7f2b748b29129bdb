/* How many bits of a number are set, and the number with its bytes in the other order. */
JNIEXPORT void JNICALL Java_A_bits(JNIEnv *env, jclass cls, jint number)
{
    uint32_t word = (uint32_t)number;
    uint32_t rest = word;
    uint32_t count = 0u;
    while (rest != 0u) {
        count = count + (rest & 1u);
        rest = rest >> 1u;
    }
    put_jint((jint)count);
    put_jint((jint)(word << 24u | (word & 0xff00u) << 8u | (word >> 8u & 0xff00u) | word >> 24u));
    return;
}
