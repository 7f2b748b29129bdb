/* Makes more objects than the heap has room for at once, and keeps the last two. */
JNIEXPORT jint JNICALL Java_Entry_previous(JNIEnv *env, jclass cls, jint count)
{
    jfieldID number = (*env)->GetFieldID(env, cls, "number", "I");
    jfieldID before = (*env)->GetFieldID(env, cls, "before", "LEntry;");
    jobject last = (*env)->AllocObject(env, cls);
    uint32_t i = 1u;
    while (i < (uint32_t)count) {
        jobject next = (*env)->AllocObject(env, cls);
        (*env)->SetIntField(env, next, number, (jint)i);
        (*env)->SetObjectField(env, last, before, NULL);
        (*env)->SetObjectField(env, next, before, last);
        (*env)->DeleteLocalRef(env, last);
        last = (*env)->NewLocalRef(env, next);
        (*env)->DeleteLocalRef(env, next);
        i = i + 1u;
    }
    jobject kept = (*env)->GetObjectField(env, last, before);
    jint found = (*env)->GetIntField(env, kept, number);
    put_jint(found);
    return found;
}
