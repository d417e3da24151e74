/* The command `receive`: a capture through the receiver. */
#include "commands.h"
#include "message.h"
#include "path.h"
#include "process.h"
#include "receiver.h"

/* What came before a cut counts: `*written` tells whether the files have been replaced. */
static int run(struct receiver *receiver, struct capture_reader *reader, const struct options *options, int *written)
{
    static struct captured frame;
    enum capture_step step;
    receiver->form = reader->form;
    if (capture_create(&receiver->out, options->out, reader->form) != 0)
        return 1;
    while ((step = capture_next(reader, &frame)) == CAPTURE_FRAME) {
        if (!options->no_ageing && frame.timed)
            receiver_age(receiver, frame.seconds);
        if (receiver_take(receiver, &frame) != 0)
            return 1;
        /* The next frame of a pipe may take its time. */
        if (reader->size < 0 && receiver_flush(receiver) != 0)
            return 1;
    }
    if (step == CAPTURE_BAD)
        return 1;
    receiver_report(receiver);
    if (output_ready() != 0 || receiver_keep(receiver) != 0)
        return 1;
    *written = 1;
    return step == CAPTURE_CUT;
}

int receive_command(const struct options *options)
{
    static struct receiver receiver;
    struct capture_reader reader;
    if (same_file(options->out, options->table) || same_file(options->out, options->capture)
        || same_file(options->table, options->capture))
        return bad_usage("the capture, --table and --out are different files");
    /* The table first: whether it can be written is known before a long capture is read. */
    int status = receiver_open(&receiver, options) != 0 || capture_open(&reader, options->capture) != 0;
    if (status == 0) {
        int written = 0;
        status = run(&receiver, &reader, options, &written);
        if (!written)
            bad_data("%s stays as it was", options->table);
        if (!written && receiver.out.temporary != NULL)
            bad_data("%s stays as it was", options->out);
        capture_close(&reader);
    }
    receiver_close(&receiver);
    return status;
}
