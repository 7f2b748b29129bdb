/* An element past the end of an array stops the machine with trap 3. */
JNIEXPORT void JNICALL Java_A_bounds(JNIEnv *env, jclass cls, jint place)
{
    jshort numbers[3] = {0};
    numbers[2] = 5;
    put_jint(numbers[place]);
    return;
}
