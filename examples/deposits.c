/* Adds an amount to a balance that threads share. The balance is read in one step and written in another, so what another thread adds between them
   is lost; the schedule says whether that happens. */
JNIEXPORT void JNICALL Java_Account_deposit(JNIEnv *env, jclass cls, jobject account, jint amount)
{
    jfieldID balance = (*env)->GetFieldID(env, cls, "balance", "I");
    jint old = (*env)->GetIntField(env, account, balance);
    (*env)->SetIntField(env, account, balance, (jint)((uint32_t)old + (uint32_t)amount));
    put_jint(old);
    return;
}
