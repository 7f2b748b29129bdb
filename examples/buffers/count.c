/* Counts how often a character is in a string. */
JNIEXPORT jint JNICALL Java_Text_count(JNIEnv *env, jclass cls, jstring text, jint wanted)
{
    jsize length = (*env)->GetStringLength(env, text);
    const jchar *chars = (*env)->GetStringChars(env, text, NULL);
    uint32_t found = 0u;
    if (chars != NULL) {
        uint32_t i = 0u;
        while (i < (uint32_t)length) {
            if (chars[i] == wanted) {
                found = found + 1u;
            }
            i = i + 1u;
        }
        (*env)->ReleaseStringChars(env, text, chars);
    }
    put_jint((jint)found);
    return (jint)found;
}
