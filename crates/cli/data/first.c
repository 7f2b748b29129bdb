JNIEXPORT void JNICALL Java_A_f(JNIEnv *env, jclass cls)
{
    put_jint((jint)(2u + 3u * 4u - 1u));
    return;
}
