/* A static reference begins as NULL. */
static jobject cache = NULL;

JNIEXPORT void JNICALL Java_A_cache(JNIEnv *env, jclass cls)
{
    jobject found = NULL;
    if (cache != NULL) {
        put_jint(1);
    } else {
        put_jint(0);
    }
    if (found == NULL) {
        cache = NULL;
    }
    return;
}
