/* Serves each request in a thread of its own, one after the other, and writes a dot for each. */
#include <pthread.h>
#include <unistd.h>

static void *serve(void *request)
{
    return request;
}

int main(void)
{
    for (int request = 0; request < 100; request++) {
        pthread_t thread;
        if (pthread_create(&thread, 0, serve, 0) || pthread_join(thread, 0))
            return 1;
        write(1, ".", 1);
    }
    return 0;
}
