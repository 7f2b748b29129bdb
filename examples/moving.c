/* Two threads on one heap: the first works on an array in place, through a critical view, while the second makes objects; a collection between two
   steps moves all objects but the array. docs/moving.svg shows the heap before and after it. */
JNIEXPORT void JNICALL Java_Heap_fill(JNIEnv *env, jclass cls)
{
    jintArray unused = (*env)->NewIntArray(env, 60);
    jintArray kept = (*env)->NewIntArray(env, 30);
    jintArray array = (*env)->NewIntArray(env, 40);
    (*env)->DeleteLocalRef(env, unused);
    jint *view = (*env)->GetPrimitiveArrayCritical(env, array, NULL);
    if (view != NULL) {
        view[0] = 7;
        view[1] = view[0];
        (*env)->ReleasePrimitiveArrayCritical(env, array, view, 0);
    }
    (*env)->DeleteLocalRef(env, kept);
    return;
}

JNIEXPORT void JNICALL Java_Heap_make(JNIEnv *env, jclass cls)
{
    jintArray unused = (*env)->NewIntArray(env, 100);
    jintArray kept = (*env)->NewIntArray(env, 80);
    (*env)->DeleteLocalRef(env, unused);
    jintArray large = (*env)->NewIntArray(env, 150);
    jint length = (*env)->GetArrayLength(env, large);
    put_jint(length);
    (*env)->DeleteLocalRef(env, kept);
    return;
}
