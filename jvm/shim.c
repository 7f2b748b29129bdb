/* What Runner.java needs in C: the natives of Shim.java, put_jint, and the notes that shim.h asks for. One thread runs at a time, so nothing is locked. */
#include <pthread.h>
#include <stdio.h>
#include <stdlib.h>
#include <jni.h>

/* Below these sums of all that a run asks for, jnirun refuses nothing: it grants 1,024 local references in all, of which the entry into a call takes at most
 * 273, 65,536 copied elements, 64 views, and 255 entries into a monitor. */
enum { REFERENCES = 1024 - 273, ELEMENTS = 65536, VIEWS = 64, ENTRIES = 255 };

static FILE *report;
static int thread_number;

static void say(const char *kind, const char *text)
{
    fprintf(report, "%s%s\n", kind, text);
    fflush(report);
}

void put_jint(jint number)
{
    fprintf(report, "T%d %ld\n", thread_number, (long)number);
    fflush(report);
}

/* ---- what is asked for */

struct sum {
    const char *note;
    long long most, asked;
};

static struct sum references = {"capacity", REFERENCES, 0}, elements = {"copies", ELEMENTS, 0}, views = {"views", VIEWS, 0}, entries = {"entries", ENTRIES, 0};

/* Adds to a sum, and notes the first time that it is past what is always granted. */
static void ask(struct sum *sum, long long many)
{
    if (sum->asked > sum->most)
        return;
    sum->asked = many < 0 ? sum->most + 1 : sum->asked + many;
    if (sum->asked > sum->most)
        say("? ", sum->note);
}

jint jnirun_capacity(jint capacity)
{
    ask(&references, capacity);
    return capacity;
}

jarray jnirun_copy(JNIEnv *env, jarray array)
{
    ask(&elements, (*env)->GetArrayLength(env, array));
    return array;
}

jstring jnirun_characters(JNIEnv *env, jstring string)
{
    ask(&elements, (*env)->GetStringLength(env, string));
    return string;
}

jobject jnirun_view(jobject viewed)
{
    ask(&views, 1);
    return viewed;
}

jobject jnirun_entry(jobject object)
{
    ask(&entries, 1);
    return object;
}

/* ---- global references: a list of the objects that they keep, by references of its own */

static jobject *globals;
static int count;

static void *checked(JNIEnv *env, void *memory)
{
    if (memory == NULL)
        (*env)->FatalError(env, "no memory for the notes of a run");
    return memory;
}

/* A weak reference that was cleared keeps nothing. One that isn't is kept from here on, and so can't be cleared before the program has its own reference. */
jobject jnirun_global(JNIEnv *env, jobject object)
{
    jobject kept = (*env)->NewGlobalRef(env, object);
    if (kept != NULL) {
        globals = checked(env, realloc(globals, (size_t)(count + 1) * sizeof *globals));
        globals[count++] = kept;
    } else if (!(*env)->IsSameObject(env, object, NULL))
        checked(env, NULL);
    return object;
}

/* A global reference may be deleted while an exception is pending, and objects may not be compared then: it is put by. */
jobject jnirun_deletion(JNIEnv *env, jobject global)
{
    jthrowable pending = (*env)->ExceptionOccurred(env);
    int at = 0;
    if (pending != NULL)
        (*env)->ExceptionClear(env);
    while (at < count && !(*env)->IsSameObject(env, globals[at], global))
        at++;
    if (at < count) {
        (*env)->DeleteGlobalRef(env, globals[at]);
        for (count--; at < count; at++)
            globals[at] = globals[at + 1];
    }
    if (pending != NULL) {
        (*env)->Throw(env, pending);
        (*env)->DeleteLocalRef(env, pending);
    }
    return global;
}

/* ---- weak global references: a list of references of its own to the same objects, which the virtual machine clears with the program's */

static jweak *weaks;
static int weak_count;

jobject jnirun_weak(JNIEnv *env, jobject object)
{
    if (object != NULL) {
        weaks = checked(env, realloc(weaks, (size_t)(weak_count + 1) * sizeof *weaks));
        weaks[weak_count++] = checked(env, (*env)->NewWeakGlobalRef(env, object));
    }
    return object;
}

/* Notes that one was cleared, the first time that it is seen. */
static void note_cleared(JNIEnv *env)
{
    static int is_noted;
    for (int at = 0; at < weak_count && !is_noted; at++)
        is_noted = (*env)->IsSameObject(env, weaks[at], NULL);
    if (is_noted == 1) {
        say("? ", "weak");
        is_noted = 2;
    }
}

JNIEXPORT jint JNICALL Java_jnirun_Shim_globals(JNIEnv *env, jclass cls)
{
    return count;
}

JNIEXPORT jobject JNICALL Java_jnirun_Shim_global(JNIEnv *env, jclass cls, jint at)
{
    return (*env)->NewLocalRef(env, globals[at]);
}

/* ---- the report */

JNIEXPORT void JNICALL Java_jnirun_Shim_say(JNIEnv *env, jclass cls, jstring line)
{
    const char *text = checked(env, (void *)(*env)->GetStringUTFChars(env, line, NULL));
    say("", text);
    (*env)->ReleaseStringUTFChars(env, line, text);
}

/* Notes functions that give a copy where they give a view under jnirun, or say that they do, or the other way round. */
static void note_habit(const char *functions, int is_other)
{
    if (is_other)
        say("? isCopy ", functions);
}

/* Whether what was written to numbers of an array is there though they were released by JNI_ABORT. */
static int is_written(JNIEnv *env, jintArray array)
{
    jint number;
    (*env)->GetIntArrayRegion(env, array, 0, 1, &number);
    return number == 1;
}

static void note_habits(JNIEnv *env)
{
    jboolean is_copy;
    jstring string = checked(env, (*env)->NewStringUTF(env, "a"));
    jintArray copied = checked(env, (*env)->NewIntArray(env, 1)), viewed = checked(env, (*env)->NewIntArray(env, 1));
    jint *numbers = checked(env, (*env)->GetIntArrayElements(env, copied, &is_copy));
    *numbers = 1;
    (*env)->ReleaseIntArrayElements(env, copied, numbers, JNI_ABORT);
    note_habit("Elements", !is_copy || is_written(env, copied));
    numbers = checked(env, (*env)->GetPrimitiveArrayCritical(env, viewed, &is_copy));
    *numbers = 1;
    (*env)->ReleasePrimitiveArrayCritical(env, viewed, numbers, JNI_ABORT);
    note_habit("PrimitiveArrayCritical", is_copy || !is_written(env, viewed));
    const jchar *units = checked(env, (void *)(*env)->GetStringChars(env, string, &is_copy));
    (*env)->ReleaseStringChars(env, string, units);
    note_habit("StringChars", !is_copy);
    units = checked(env, (void *)(*env)->GetStringCritical(env, string, &is_copy));
    (*env)->ReleaseStringCritical(env, string, units);
    note_habit("StringCritical", is_copy);
}

JNIEXPORT void JNICALL Java_jnirun_Shim_begin(JNIEnv *env, jclass cls, jstring path)
{
    const char *name = checked(env, (void *)(*env)->GetStringUTFChars(env, path, NULL));
    report = fopen(name, "w");
    (*env)->ReleaseStringUTFChars(env, path, name);
    if (report == NULL)
        (*env)->FatalError(env, "the report can't be written");
    note_habits(env);
}

/* ---- objects that no constructor of their own makes */

JNIEXPORT jobject JNICALL Java_jnirun_Shim_allocate(JNIEnv *env, jclass cls, jclass of)
{
    return (*env)->AllocObject(env, of);
}

JNIEXPORT void JNICALL Java_jnirun_Shim_initialise(JNIEnv *env, jclass cls, jthrowable exception, jstring message)
{
    jclass throwable = (*env)->FindClass(env, "java/lang/Throwable");
    jmethodID constructor = (*env)->GetMethodID(env, throwable, "<init>", "(Ljava/lang/String;)V");
    (*env)->CallNonvirtualVoidMethod(env, exception, throwable, constructor, message);
}

/* ---- threads */

struct thread {
    JavaVM *machine;
    jclass runner;
    const char *fault;
};

/* The thread is attached and detached, and so gives up the monitors that it owns at its end (JNI Specification, chapter 5, "DetachCurrentThread"). */
static void *attached(void *given)
{
    struct thread *thread = given;
    JNIEnv *env;
    if ((*thread->machine)->AttachCurrentThread(thread->machine, (void **)&env, NULL) != JNI_OK) {
        thread->fault = "AttachCurrentThread fails";
        return NULL;
    }
    jmethodID calls = (*env)->GetStaticMethodID(env, thread->runner, "calls", "(I)V");
    (*env)->CallStaticVoidMethod(env, thread->runner, calls, (jint)thread_number);
    if ((*env)->ExceptionCheck(env)) {
        (*env)->ExceptionDescribe(env);
        thread->fault = "the calls of a thread can't be made";
    }
    (*thread->machine)->DetachCurrentThread(thread->machine);
    return NULL;
}

JNIEXPORT void JNICALL Java_jnirun_Shim_thread(JNIEnv *env, jclass cls, jclass runner, jint number)
{
    struct thread thread = {NULL, (*env)->NewGlobalRef(env, runner), NULL};
    pthread_t id;
    thread_number = (int)number;
    (*env)->GetJavaVM(env, &thread.machine);
    if (pthread_create(&id, NULL, attached, &thread) != 0 || pthread_join(id, NULL) != 0)
        thread.fault = "a thread can't be started";
    (*env)->DeleteGlobalRef(env, thread.runner);
    note_cleared(env);
    if (thread.fault != NULL)
        (*env)->FatalError(env, thread.fault);
}
