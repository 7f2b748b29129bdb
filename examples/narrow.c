/* A number stored in an element of another type is converted to it: jbyte and jshort wrap, jchar has no sign. */
JNIEXPORT void JNICALL Java_A_narrow(JNIEnv *env, jclass cls, jint number)
{
    jbyte bytes[1] = {0};
    jshort shorts[1] = {0};
    jchar chars[1] = {0};
    bytes[0] = number;
    shorts[0] = number;
    chars[0] = number;
    put_jint(bytes[0]);
    put_jint(shorts[0]);
    put_jint(chars[0]);
    return;
}
