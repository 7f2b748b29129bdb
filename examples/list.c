/* Adds up the numbers of a list. */
JNIEXPORT jint JNICALL Java_List_sum(JNIEnv *env, jclass cls, jobject list)
{
    jclass nodes = (*env)->FindClass(env, "Node");
    jfieldID head = (*env)->GetFieldID(env, cls, "head", "LNode;");
    jfieldID value = (*env)->GetFieldID(env, nodes, "value", "I");
    jfieldID next = (*env)->GetFieldID(env, nodes, "next", "LNode;");
    jobject node = (*env)->GetObjectField(env, list, head);
    uint32_t sum = 0u;
    while (node != NULL) {
        jint number = (*env)->GetIntField(env, node, value);
        sum = sum + (uint32_t)number;
        node = (*env)->GetObjectField(env, node, next);
    }
    put_jint((jint)sum);
    return (jint)sum;
}
