/* The right side of && is worked out only where the left side is true, so this never divides by zero. */
JNIEXPORT void JNICALL Java_A_guard(JNIEnv *env, jclass cls, jint parts)
{
    uint32_t divisor = (uint32_t)parts;
    jboolean fits = JNI_FALSE;
    if (divisor != 0u && 100u / divisor >= 10u) {
        fits = JNI_TRUE;
    }
    if (fits == JNI_TRUE || divisor > 50u) {
        put_jint(parts);
    } else {
        put_jint(0);
    }
    return;
}
