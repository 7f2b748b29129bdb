/* Moves an amount from one account to another, and owns the monitors of both meanwhile. Of two threads that move in opposite directions each can own what the
   other waits for. Threads that enter the monitors in one order, whatever the direction, never wait so. */
JNIEXPORT void JNICALL Java_Account_move(JNIEnv *env, jclass cls, jobject from, jobject to, jint amount)
{
    jfieldID balance = (*env)->GetFieldID(env, cls, "balance", "I");
    (*env)->MonitorEnter(env, from);
    (*env)->MonitorEnter(env, to);
    jint less = (*env)->GetIntField(env, from, balance);
    (*env)->SetIntField(env, from, balance, (jint)((uint32_t)less - (uint32_t)amount));
    jint more = (*env)->GetIntField(env, to, balance);
    (*env)->SetIntField(env, to, balance, (jint)((uint32_t)more + (uint32_t)amount));
    (*env)->MonitorExit(env, to);
    (*env)->MonitorExit(env, from);
    return;
}
