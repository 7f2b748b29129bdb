/* Messages wait in a table that is used round and round, while the collector marks in slices between the steps. A client takes three of them out: one before
   the marking begins, one between its first slice and its second, and one between the second and the third. It holds the first and the third weakly, and
   prints twice whether the third is gone: after the marking, which keeps it, and after the next one. docs/sliced.svg shows what is marked. */
static jweak taken = NULL;
static jweak dropped = NULL;

JNIEXPORT void JNICALL Java_Client_send(JNIEnv *env, jclass cls, jobjectArray table)
{
    jclass messages = (*env)->FindClass(env, "Message");
    uint32_t i = 0u;
    while (i < 40u) {
        jobject message = (*env)->AllocObject(env, messages);
        (*env)->SetObjectArrayElement(env, table, (jint)(i & 31u), message);
        (*env)->DeleteLocalRef(env, message);
        i = i + 1u;
    }
    return;
}

JNIEXPORT void JNICALL Java_Client_receive(JNIEnv *env, jclass cls, jobject client, jobjectArray table)
{
    jclass messages = (*env)->FindClass(env, "Message");
    jfieldID inbox = (*env)->GetFieldID(env, cls, "inbox", "LMessage;");

    jobject message = (*env)->GetObjectArrayElement(env, table, 4);
    taken = (*env)->NewWeakGlobalRef(env, message);
    (*env)->SetObjectArrayElement(env, table, 4, NULL);
    (*env)->DeleteLocalRef(env, message);

    message = (*env)->GetObjectArrayElement(env, table, 20);
    (*env)->SetObjectField(env, client, inbox, message);
    (*env)->SetObjectArrayElement(env, table, 20, NULL);
    (*env)->DeleteLocalRef(env, message);

    message = (*env)->GetObjectArrayElement(env, table, 12);
    dropped = (*env)->NewWeakGlobalRef(env, message);
    (*env)->DeleteLocalRef(env, message);
    message = (*env)->AllocObject(env, messages);
    (*env)->SetObjectArrayElement(env, table, 12, message);
    (*env)->DeleteLocalRef(env, message);

    jboolean gone = (*env)->IsSameObject(env, dropped, NULL);
    put_jint((jint)gone);
    gone = (*env)->IsSameObject(env, dropped, NULL);
    put_jint((jint)gone);
    return;
}
