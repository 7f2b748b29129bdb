/* What a program is compiled with for a Java virtual machine: include/jnirun.h, and notes. Its text stays as it is, and its calls are those of the virtual
 * machine: an argument only passes through a function of shim.c, which gives it back, and notes which objects global references keep, of which there are weak
 * ones, and whether what is asked for could be more than jnirun grants (docs/JVM.md). */
#ifndef JNIRUN_SHIM_H
#define JNIRUN_SHIM_H

#include "jnirun.h"

jobject jnirun_global(JNIEnv *env, jobject object);
jobject jnirun_weak(JNIEnv *env, jobject object);
jobject jnirun_deletion(JNIEnv *env, jobject global);
jint jnirun_capacity(jint capacity);
jarray jnirun_copy(JNIEnv *env, jarray array);
jstring jnirun_characters(JNIEnv *env, jstring string);
jobject jnirun_view(jobject viewed);
jobject jnirun_entry(jobject object);

#define NewGlobalRef(env, object) NewGlobalRef(env, jnirun_global(env, object))
#define NewWeakGlobalRef(env, object) NewWeakGlobalRef(env, jnirun_weak(env, object))
#define DeleteGlobalRef(env, global) DeleteGlobalRef(env, jnirun_deletion(env, global))
#define EnsureLocalCapacity(env, capacity) EnsureLocalCapacity(env, jnirun_capacity(capacity))
#define PushLocalFrame(env, capacity) PushLocalFrame(env, jnirun_capacity(capacity))
#define GetIntArrayElements(env, array, flag) GetIntArrayElements(env, jnirun_copy(env, array), flag)
#define GetShortArrayElements(env, array, flag) GetShortArrayElements(env, jnirun_copy(env, array), flag)
#define GetByteArrayElements(env, array, flag) GetByteArrayElements(env, jnirun_copy(env, array), flag)
#define GetCharArrayElements(env, array, flag) GetCharArrayElements(env, jnirun_copy(env, array), flag)
#define GetStringChars(env, string, flag) GetStringChars(env, jnirun_characters(env, string), flag)
#define GetPrimitiveArrayCritical(env, array, flag) GetPrimitiveArrayCritical(env, jnirun_view(array), flag)
#define GetStringCritical(env, string, flag) GetStringCritical(env, jnirun_view(string), flag)
#define MonitorEnter(env, object) MonitorEnter(env, jnirun_entry(object))

#endif
