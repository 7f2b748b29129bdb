/* The sign of a number. Each path through the function ends with a return. */
JNIEXPORT jint JNICALL Java_A_sign(JNIEnv *env, jclass cls, jint number)
{
    if (number < 0) {
        put_jint((jint)~0u);
        return (jint)~0u;
    } else {
        if (number == 0) {
            put_jint(0);
            return 0;
        }
    }
    put_jint(1);
    return 1;
}
