/* How many times a number is halved, or tripled and raised by one, before it is 1. */
JNIEXPORT void JNICALL Java_A_collatz(JNIEnv *env, jclass cls, jint start)
{
    uint32_t number = (uint32_t)start;
    uint32_t count = 0u;
    while (!(number == 1u)) {
        if (number % 2u == 0u) {
            number = number / 2u;
        } else {
            number = number * 3u + 1u;
        }
        count = count + 1u;
    }
    put_jint((jint)count);
    return;
}
