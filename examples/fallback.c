/* A method looks for a class that isn't there; its caller clears the exception and has it look for another. */
JNIEXPORT jclass JNICALL Java_Loader_load(JNIEnv *env, jclass cls, jint place)
{
    if (place == 0) {
        jclass plugin = (*env)->FindClass(env, "Plugin");
        return plugin;
    }
    jclass usual = (*env)->FindClass(env, "Usual");
    return usual;
}

JNIEXPORT void JNICALL Java_Loader_start(JNIEnv *env, jclass cls)
{
    jmethodID load = (*env)->GetStaticMethodID(env, cls, "load", "(I)Ljava/lang/Class;");
    jclass loaded = (*env)->CallStaticObjectMethod(env, cls, load, 0);
    jboolean failed = (*env)->ExceptionCheck(env);
    if (failed == JNI_TRUE) {
        (*env)->ExceptionClear(env);
        loaded = (*env)->CallStaticObjectMethod(env, cls, load, 1);
    }
    jobject made = (*env)->AllocObject(env, loaded);
    jclass class = (*env)->GetObjectClass(env, made);
    jboolean same = (*env)->IsSameObject(env, class, loaded);
    put_jint((jint)failed);
    put_jint((jint)same);
    return;
}
