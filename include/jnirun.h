/* For a C compiler: what a text that jnirun reads takes for granted. A text needs no `#include` of its own, as in
 *
 *     gcc -std=c99 -Wall -I "$JAVA_HOME/include" -I "$JAVA_HOME/include/linux" -include include/jnirun.h -c natives.c
 */
#ifndef JNIRUN_H
#define JNIRUN_H

#include <stddef.h>
#include <stdint.h>
#include <jni.h>

/* Prints a number. Under jnirun it is a line of the report; elsewhere the program that loads the natives defines it. */
void put_jint(jint number);

#endif
