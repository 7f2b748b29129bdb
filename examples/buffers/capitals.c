/* Writes a string to an array of characters, with its small letters made capitals. Neither is copied for that. */
JNIEXPORT void JNICALL Java_Text_capitals(JNIEnv *env, jclass cls, jstring text, jcharArray capitals)
{
    jint length = (*env)->GetStringLength(env, text);
    jchar *to = (*env)->GetPrimitiveArrayCritical(env, capitals, NULL);
    if (to != NULL) {
        const jchar *from = (*env)->GetStringCritical(env, text, NULL);
        if (from != NULL) {
            uint32_t i = 0u;
            while (i < (uint32_t)length) {
                uint32_t c = (uint32_t)from[i];
                if (c >= 97u && c <= 122u) {
                    c = c - 32u;
                }
                to[i] = (jint)c;
                i = i + 1u;
            }
            (*env)->ReleaseStringCritical(env, text, from);
        }
        (*env)->ReleasePrimitiveArrayCritical(env, capitals, to, 0);
    }
    return;
}
