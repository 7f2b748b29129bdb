/* Puts the numbers from count down to 1 at the front of a list, one after the other. Each turn has a frame of its own: what it refers to is
   let go of with the frame, and the new node alone comes out. Without frames nine turns would fill the sixteen places that there are. */
JNIEXPORT jint JNICALL Java_List_fill(JNIEnv *env, jclass cls, jobject list, jint count)
{
    jclass nodes = (*env)->FindClass(env, "Node");
    jfieldID head = (*env)->GetFieldID(env, cls, "head", "LNode;");
    jfieldID value = (*env)->GetFieldID(env, nodes, "value", "I");
    jfieldID next = (*env)->GetFieldID(env, nodes, "next", "LNode;");
    jobject first = NULL;
    jint number = count;
    while (number > 0) {
        if ((*env)->PushLocalFrame(env, 2) == 0) {
            jobject rest = (*env)->GetObjectField(env, list, head);
            jobject node = (*env)->AllocObject(env, nodes);
            if (node != NULL) {
                (*env)->SetIntField(env, node, value, number);
                (*env)->SetObjectField(env, node, next, rest);
                (*env)->SetObjectField(env, list, head, node);
            }
            (*env)->DeleteLocalRef(env, first);
            first = (*env)->PopLocalFrame(env, node);
        } else {
            return number;
        }
        if (first == NULL) {
            return number;
        }
        number = (jint)((uint32_t)number - 1u);
    }
    if (first != NULL) {
        jint found = (*env)->GetIntField(env, first, value);
        put_jint(found);
    }
    return number;
}
