/* Makes an array of objects, each with the square of its place, and adds the squares up. */
JNIEXPORT jint JNICALL Java_Box_squares(JNIEnv *env, jclass cls, jint count)
{
    jfieldID value = (*env)->GetFieldID(env, cls, "value", "I");
    jobjectArray boxes = (*env)->NewObjectArray(env, count, cls, NULL);
    uint32_t i = 0u;
    while (i < (uint32_t)count) {
        jobject box = (*env)->AllocObject(env, cls);
        (*env)->SetIntField(env, box, value, (jint)(i * i));
        (*env)->SetObjectArrayElement(env, boxes, (jint)i, box);
        (*env)->DeleteLocalRef(env, box);
        i = i + 1u;
    }
    uint32_t sum = 0u;
    i = 0u;
    while (i < (uint32_t)count) {
        jobject kept = (*env)->GetObjectArrayElement(env, boxes, (jint)i);
        jint square = (*env)->GetIntField(env, kept, value);
        (*env)->DeleteLocalRef(env, kept);
        sum = sum + (uint32_t)square;
        i = i + 1u;
    }
    put_jint((jint)sum);
    return (jint)sum;
}
