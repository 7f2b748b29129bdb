/* A cache of two tables that keeps neither of them: it holds them weakly. While a call works with a table, other calls find it; once none does, a collection
   takes it, and the next call makes it again. Each method prints 1 where it has found its table, and 0 where it makes it. docs/weakly.svg shows the heap
   before and after a collection. */
static jweak rows = NULL;
static jweak columns = NULL;

JNIEXPORT void JNICALL Java_Cache_rows(JNIEnv *env, jclass cls)
{
    (*env)->MonitorEnter(env, cls);
    jintArray table = (*env)->NewLocalRef(env, rows);
    if (table != NULL) {
        put_jint(1);
    } else {
        put_jint(0);
        table = (*env)->NewIntArray(env, 120);
        if (table != NULL) {
            (*env)->DeleteWeakGlobalRef(env, rows);
            rows = (*env)->NewWeakGlobalRef(env, table);
        }
    }
    (*env)->MonitorExit(env, cls);
    return;
}

JNIEXPORT void JNICALL Java_Cache_columns(JNIEnv *env, jclass cls)
{
    (*env)->MonitorEnter(env, cls);
    jintArray table = (*env)->NewLocalRef(env, columns);
    if (table != NULL) {
        put_jint(1);
    } else {
        put_jint(0);
        table = (*env)->NewIntArray(env, 80);
        if (table != NULL) {
            (*env)->DeleteWeakGlobalRef(env, columns);
            columns = (*env)->NewWeakGlobalRef(env, table);
        }
    }
    (*env)->MonitorExit(env, cls);
    return;
}
