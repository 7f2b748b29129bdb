/* Keeps an object from one call to the next: one native method makes it and a global reference to it, another uses the reference, and a third
   deletes it. */
static jobject tally = NULL;

JNIEXPORT void JNICALL Java_Tally_open(JNIEnv *env, jclass cls)
{
    if (tally == NULL) {
        jobject made = (*env)->AllocObject(env, cls);
        if (made != NULL) {
            tally = (*env)->NewGlobalRef(env, made);
        }
    }
    return;
}

JNIEXPORT void JNICALL Java_Tally_add(JNIEnv *env, jclass cls, jint number)
{
    jfieldID total = (*env)->GetFieldID(env, cls, "total", "I");
    if (tally != NULL) {
        jint old = (*env)->GetIntField(env, tally, total);
        (*env)->SetIntField(env, tally, total, (jint)((uint32_t)old + (uint32_t)number));
    }
    return;
}

JNIEXPORT void JNICALL Java_Tally_close(JNIEnv *env, jclass cls)
{
    jfieldID total = (*env)->GetFieldID(env, cls, "total", "I");
    if (tally != NULL) {
        jint sum = (*env)->GetIntField(env, tally, total);
        put_jint(sum);
        (*env)->DeleteGlobalRef(env, tally);
        tally = NULL;
    }
    return;
}
