/* Gives back the references of a frame while an exception is pending, which is allowed then. */
JNIEXPORT jobject JNICALL Java_Check_cleanup(JNIEnv *env, jclass cls, jobjectArray array)
{
    jobject kept = NULL;
    if ((*env)->PushLocalFrame(env, 4) == 0) {
        jobject first = (*env)->GetObjectArrayElement(env, array, 0);
        kept = (*env)->PopLocalFrame(env, first);
    }
    jboolean failed = (*env)->ExceptionCheck(env);
    (*env)->ExceptionClear(env);
    put_jint((jint)failed);
    return kept;
}
