/* Adds up the numbers of a tree: the method calls itself for both branches. */
JNIEXPORT jint JNICALL Java_Node_sum(JNIEnv *env, jclass cls, jobject node)
{
    if (node == NULL) {
        return 0;
    }
    jfieldID leftField = (*env)->GetFieldID(env, cls, "left", "LNode;");
    jfieldID rightField = (*env)->GetFieldID(env, cls, "right", "LNode;");
    jfieldID valueField = (*env)->GetFieldID(env, cls, "value", "I");
    jmethodID sum = (*env)->GetStaticMethodID(env, cls, "sum", "(Ljava/lang/Object;)I");
    jobject left = (*env)->GetObjectField(env, node, leftField);
    jobject right = (*env)->GetObjectField(env, node, rightField);
    jint value = (*env)->GetIntField(env, node, valueField);
    jint leftSum = (*env)->CallStaticIntMethod(env, cls, sum, left);
    jint rightSum = (*env)->CallStaticIntMethod(env, cls, sum, right);
    return (jint)((uint32_t)value + (uint32_t)leftSum + (uint32_t)rightSum);
}

JNIEXPORT void JNICALL Java_Node_print(JNIEnv *env, jclass cls, jobject root)
{
    jmethodID sum = (*env)->GetStaticMethodID(env, cls, "sum", "(Ljava/lang/Object;)I");
    jint all = (*env)->CallStaticIntMethod(env, cls, sum, root);
    put_jint(all);
    return;
}
