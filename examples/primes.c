/* The primes below 20: the multiples of each number are marked. */
JNIEXPORT void JNICALL Java_A_primes(JNIEnv *env, jclass cls)
{
    jbyte marked[20] = {0};
    uint32_t number = 2u;
    while (number < 20u) {
        if (marked[number] == 0) {
            put_jint((jint)number);
            uint32_t multiple = number * number;
            while (multiple < 20u) {
                marked[multiple] = 1;
                multiple = multiple + number;
            }
        }
        number = number + 1u;
    }
    return;
}
