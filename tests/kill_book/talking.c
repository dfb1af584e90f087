/* Talking with a `book` that runs: commands are sent and answers heard, up to the time of a plan. */
#define _GNU_SOURCE
#include "running.h"
#include <errno.h>
#include <fcntl.h>
#include <poll.h>
#include <time.h>
#include <unistd.h>

static void send_some(struct child *child, const struct script *script, const struct plan *plan, int done, size_t *sent) {
    size_t limit = plan->one_by_one ? script->command_end[done < script->count ? done : script->count - 1] : script->commands.length;
    if (*sent < limit) {
        size_t piece = limit - *sent, most = 1 + (size_t)below(8000);
        ssize_t went = write(child->in, script->commands.bytes + *sent, piece < most ? piece : most);
        if (went > 0) *sent += (size_t)went;
    }
    if (plan->ends && *sent == script->commands.length) close_input(child);
}

static int something_to_send(const struct child *child, const struct script *script, const struct plan *plan, int done, size_t sent) {
    return child->in >= 0 && sent < (plan->one_by_one && done < script->count ? script->command_end[done] : script->commands.length);
}

void talk(struct child *child, const struct script *script, const struct plan *plan, struct text *heard, struct pace *pace) {
    long long start = now(), end = start + plan->time, time;
    size_t sent = 0;
    int done = 0;
    fcntl(child->in, F_SETFL, O_NONBLOCK);
    while ((time = now()) < end) {
        long long rest = end - time;
        struct timespec wait = {rest / 1000000000, rest % 1000000000};
        struct pollfd ends[2] = {{child->out, POLLIN, 0}, {-1, POLLOUT, 0}};
        if (something_to_send(child, script, plan, done, sent)) ends[1].fd = child->in;
        if (ppoll(ends, 2, &wait, NULL) < 0 && errno != EINTR) give_up("no poll");
        if (ends[1].revents) send_some(child, script, plan, done, &sent);
        if (!ends[0].revents) continue;
        need(heard, 65536);
        ssize_t got = read(child->out, heard->bytes + heard->length, 65536);
        if (got <= 0) return;
        if (heard->length == 0) pace->first = now() - start;
        heard->length += (size_t)got;
        done = answered(script, heard->length);
        if (plan->answers >= 0 && done >= plan->answers && now() + plan->after < end) end = now() + plan->after;
    }
}

int fill(long long time, const struct pace *pace) {
    long long count = time / (pace->each + 1);
    return (int)(count < 8 ? 8 : count > MOST ? MOST : count);
}
