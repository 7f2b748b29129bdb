/* A shift by 32 or more stops the machine with trap 2. */
JNIEXPORT void JNICALL Java_A_shift(JNIEnv *env, jclass cls, jint count)
{
    uint32_t places = (uint32_t)count;
    put_jint((jint)(1u << places));
    return;
}
