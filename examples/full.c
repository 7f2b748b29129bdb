/* Fills the heap: the object that has no room is refused, and the method returns with an OutOfMemoryError pending. */
JNIEXPORT void JNICALL Java_Page_fill(JNIEnv *env, jclass cls)
{
    uint32_t i = 0u;
    while (i < 16u) {
        jobject page = (*env)->AllocObject(env, cls);
        if (page == NULL) {
            return;
        }
        i = i + 1u;
    }
    return;
}
