/*
 * Draws a job, text or bytes, as a picture in SVG on standard output: the road
 * from above with each hazard and the approach of its adjacent traffic, which is
 * drawn through the three corners that barrier_corners gives.
 *
 *     corners jobs/corners.job >corners.svg
 *
 * These are the approaches of single hazards, each as if it stood alone: this
 * is not a schedule.  A run of several hazards is not built from all of their
 * approaches: barrier.h, "Corner points", says which corners it is drawn from.
 *
 * The sheet corner is the road's begin at offset 0, so the corners are counted
 * from there: those of an approach that runs into the contract before this one
 * have negative stations.  Below the picture the corners stand as numbers, in
 * metres; with --stations km their stations are the road's own, like 1+250.000.
 *
 * Ends with 0; with 1 where the engine refuses the job, which is said on
 * standard error, and no picture is written; with 2 where it is used wrongly,
 * the input cannot be read or the output cannot be written.
 */
#include "job_text.h"

#include <barrier.h>

static const char usage[] = "usage: corners [--stations km|metres] [--help] [FILE]\n";

/* From millimetres to the picture.  Along and across have different scales. */
struct frame {
    double width;
    double first, along;     /* the leftmost station, units for a millimetre */
    double deepest, across;  /* the greatest offset drawn, units for a millimetre */
    double right_edge;       /* the travelled-way edges */
    double left_edge;
    double numbers, height;  /* where the corners' numbers begin, and the end */
    size_t columns;          /* of these numbers */
};

enum {
    WIDTH = 1240,       /* of a picture, and of a column of numbers */
    ONE_COLUMN = 40,    /* this many hazards have one; more make a wider picture */
    TOP = 104,
    SIDE_DEPTH = 170,
    ROAD_LEAST = 40,
    LINE = 16,
    BELOW = 32,         /* the road ends' labels, below the hazards' numbers */
    GAP = 76,
    TWO_LABELS = 360 /* the room of two labels with the longest stations */
};

/* The job's road; of each hazard its stations from the road's begin on, as the
   corners are counted, and what barrier_corners replies. */
static barrier_help_header road;
static struct {
    double start, end;
    barrier_corners_reply corners;
} drawn[BARRIER_HAZARDS_MAX];
static int kilometres;

/* A corner that was counted from (0, 0), on the road as it is, from its begin. */
static barrier_corner on_sheet(barrier_corner corner)
{
    if (job.stations_fall)
        corner = barrier_help_turn_corner(road.begin, road.end, corner);
    corner.station -= (double)road.begin;
    return corner;
}

/* The corners of every hazard of an accepted job. */
static void ask_corners(void)
{
    for (size_t i = 0; i < job.count; i++) {
        barrier_corners_reply reply = barrier_corners(job.bytes, job.length, i, 0, 0);
        reply.upstream = on_sheet(reply.upstream);
        reply.flare = on_sheet(reply.flare);
        reply.hazard = on_sheet(reply.hazard);
        drawn[i].corners = reply;
        drawn[i].start = (double)(job.hazards[i].numbers.start - road.begin);
        drawn[i].end = (double)(job.hazards[i].numbers.end - road.begin);
    }
}

static int has_approach(size_t index)
{
    return drawn[index].corners.number == BARRIER_DONE;
}

static double lesser(double a, double b)
{
    return a < b ? a : b;
}

static double greater(double a, double b)
{
    return a > b ? a : b;
}

/* Everything that is drawn fits, with a margin; without hazards, the road. */
static struct frame frame_of_job(void)
{
    struct frame frame;
    double first = 0, last = (double)(road.end - road.begin);
    double deepest = 1.25 * (double)road.clear_zone;
    for (size_t i = 0; i < job.count; i++) {
        const barrier_corner upstream = drawn[i].corners.upstream;
        double from = drawn[i].start, to = drawn[i].end;
        if (has_approach(i)) {
            from = lesser(from, upstream.station);
            to = greater(to, upstream.station);
            deepest = greater(deepest, upstream.offset);
        }
        first = i == 0 ? from : lesser(first, from);
        last = i == 0 ? to : greater(last, to);
    }
    const double margin = (last - first) / 20;
    frame.columns = job.count > ONE_COLUMN ? 2 : 1;
    frame.width = WIDTH * (double)frame.columns;
    frame.first = first - margin;
    frame.along = frame.width / (last - first + 2 * margin);
    frame.deepest = deepest;
    frame.across = SIDE_DEPTH / deepest;
    frame.left_edge = TOP + SIDE_DEPTH;
    /* The job does not say how wide a one-way road is. */
    frame.right_edge =
        frame.left_edge + greater(ROAD_LEAST, 2 * (double)road.centreline * frame.across);
    frame.numbers = frame.right_edge + SIDE_DEPTH + GAP;
    frame.height =
        frame.numbers + LINE * (double)((job.count + frame.columns - 1) / frame.columns + 1);
    return frame;
}

static double x_of(const struct frame *frame, double station)
{
    return (station - frame->first) * frame->along;
}

/* Offsets go away from the road: down on the right side, up on the left. */
static double y_of(const struct frame *frame, uint64_t side, double offset)
{
    const double units = lesser(offset, frame->deepest) * frame->across;
    return side == BARRIER_RIGHT ? frame->right_edge + units : frame->left_edge - units;
}

static void print_rect(double x1, double y1, double x2, double y2, const char *fill)
{
    const double top = lesser(y1, y2);
    printf("  <rect x=\"%.1f\" y=\"%.1f\" width=\"%.1f\" height=\"%.1f\" fill=\"%s\"/>\n", x1, top,
           greater(x2 - x1, 1), greater(greater(y1, y2) - top, 1), fill);
}

/* Millimetres from the road's begin as the sheet has stations. */
static void station_text(double station, char *text)
{
    if (kilometres)
        barrier_help_kilometres_signed((int64_t)(station + (double)road.begin), text,
                                       BARRIER_HELP_TEXT_MAX);
    else
        barrier_help_metres_signed((int64_t)station, text, BARRIER_HELP_TEXT_MAX);
}

/* A station of the road, as it is signed. */
static void road_text(uint64_t station, char *text)
{
    if (kilometres)
        barrier_help_kilometres(station, text, BARRIER_HELP_TEXT_MAX);
    else
        barrier_help_metres(station, text, BARRIER_HELP_TEXT_MAX);
}

/*
 * An end of the road, with its station in that row below the picture; the line
 * only where the end is in it.  The label goes from its line inwards: no station
 * is cut at the edge.
 */
static void print_road_end(const struct frame *frame, double x, int row, const char *name,
                           uint64_t station)
{
    const double top = y_of(frame, BARRIER_LEFT, frame->deepest);
    const double bottom = y_of(frame, BARRIER_RIGHT, frame->deepest);
    const int inside = x > 0 && x < frame->width, before = x < frame->width / 2;
    char text[BARRIER_HELP_TEXT_MAX];
    road_text(station, text);
    if (inside)
        printf("  <path d=\"M%.1f %.1fV%.1f\" stroke=\"#52606d\"/>\n", x, top, bottom + BELOW);
    printf("  <text x=\"%.1f\" y=\"%.1f\" text-anchor=\"%s\" fill=\"#52606d\">%s %s%s</text>\n",
           (inside ? x : before ? 4 : frame->width - 4) + (before ? 4 : -4),
           bottom + BELOW + LINE * row, before ? "start" : "end", name, text,
           inside ? "" : ", off this sheet");
}

/* The road ends where its job does, and the approaches may go on. */
static void print_road(const struct frame *frame)
{
    const double begin = x_of(frame, 0), end = x_of(frame, (double)(road.end - road.begin));
    const double from = greater(begin, 0), to = lesser(end, frame->width);
    const double top = y_of(frame, BARRIER_LEFT, frame->deepest);
    const double bottom = y_of(frame, BARRIER_RIGHT, frame->deepest);
    print_rect(from, top, to, bottom, "#f3f6ec");
    print_rect(from, frame->left_edge, to, frame->right_edge, "#dde2e7");
    for (int side = BARRIER_RIGHT; side <= BARRIER_LEFT; side++) {
        const double zone = y_of(frame, (uint64_t)side, (double)road.clear_zone);
        printf("  <path d=\"M%.1f %.1fH%.1f\" stroke=\"#b84e12\" stroke-dasharray=\"2 4\"/>\n", from,
               zone, to);
    }
    print_road_end(frame, begin, 0, "road begin", road.begin);
    /* Ends that are near each other have their labels in two rows. */
    print_road_end(frame, end, to - from < TWO_LABELS, "road end", road.end);
}

static void print_dot(const struct frame *frame, uint64_t side, barrier_corner corner)
{
    printf("  <circle cx=\"%.1f\" cy=\"%.1f\" r=\"4\" fill=\"#0f4c81\"/>\n",
           x_of(frame, corner.station), y_of(frame, side, corner.offset));
}

/* The approach through its corners, then the barrier beside the hazard. */
static void print_approach(const struct frame *frame, size_t index)
{
    const uint64_t side = job.hazards[index].numbers.side;
    const barrier_corner upstream = drawn[index].corners.upstream;
    const barrier_corner flare = drawn[index].corners.flare;
    const barrier_corner end = drawn[index].corners.hazard;
    /* Where the traffic comes from lower stations, the corner is at the start. */
    const int rising = upstream.station < end.station;
    const double other_end = rising ? drawn[index].end : drawn[index].start;
    printf("  <path d=\"M%.1f %.1fL%.1f %.1fL%.1f %.1f\" stroke=\"#0f4c81\" stroke-width=\"2\" "
           "fill=\"none\"/>\n",
           x_of(frame, upstream.station), y_of(frame, side, upstream.offset),
           x_of(frame, flare.station), y_of(frame, side, flare.offset), x_of(frame, end.station),
           y_of(frame, side, end.offset));
    printf("  <path d=\"M%.1f %.1fH%.1f\" stroke=\"#6fb0da\" stroke-width=\"3\"/>\n",
           x_of(frame, end.station), y_of(frame, side, (double)road.barrier_offset),
           x_of(frame, other_end));
    print_dot(frame, side, upstream);
    print_dot(frame, side, flare);
    print_dot(frame, side, end);
}

/* The foot of a hazard's number: beyond its far edge, and not on the clear zone's line. */
static double number_foot(const struct frame *frame, uint64_t side, double far_edge)
{
    const double zone = y_of(frame, side, (double)road.clear_zone);
    const double foot = side == BARRIER_RIGHT ? far_edge + 14 : far_edge - 5;
    if (zone < foot - 16 || zone > foot + 5)
        return foot;
    return side == BARRIER_RIGHT ? zone + 17 : zone - 6;
}

static void print_hazard(const struct frame *frame, size_t index)
{
    const barrier_hazard *hazard = &job.hazards[index].numbers;
    const double start = x_of(frame, drawn[index].start);
    const double far_edge = y_of(frame, hazard->side, (double)hazard->far_offset);
    print_rect(start, y_of(frame, hazard->side, (double)hazard->near_offset),
               x_of(frame, drawn[index].end), far_edge, "#b3362b");
    printf("  <text x=\"%.1f\" y=\"%.1f\" fill=\"#b3362b\">%zu</text>\n", start,
           number_foot(frame, hazard->side, far_edge), index);
    if (has_approach(index))
        print_approach(frame, index);
}

/* A corner as numbers, exactly: it is a whole count of millimetres. */
static void print_corner(const char *name, barrier_corner corner)
{
    char station[BARRIER_HELP_TEXT_MAX], offset[BARRIER_HELP_TEXT_MAX];
    station_text(corner.station, station);
    barrier_help_metres_signed((int64_t)corner.offset, offset, sizeof offset);
    printf("%s (%s, %s)", name, station, offset);
}

/* A name in quotes, in XML: what would be a mark there is written out. */
static void print_name(const char *name)
{
    printf(" &#8220;");
    for (; *name != '\0'; name++) {
        if (*name == '&')
            printf("&amp;");
        else if (*name == '<')
            printf("&lt;");
        else if (*name == '>')
            printf("&gt;");
        else
            putchar(*name);
    }
    printf("&#8221;");
}

/* A line of numbers, down the first column and then down the next. */
static void print_numbers(const struct frame *frame, size_t index)
{
    const barrier_corners_reply *corners = &drawn[index].corners;
    const size_t rows = (job.count + frame->columns - 1) / frame->columns;
    printf("  <text x=\"%d\" y=\"%.1f\" font-size=\"12\">hazard %zu",
           20 + WIDTH * (int)(index / rows), frame->numbers + LINE * (double)(index % rows), index);
    if (job.hazards[index].name != NULL)
        print_name(job.hazards[index].name);
    printf(", %s: ", job.hazards[index].numbers.side == BARRIER_RIGHT ? "right" : "left");
    if (has_approach(index)) {
        print_corner("upstream", corners->upstream);
        print_corner(", flare", corners->flare);
        print_corner(", hazard", corners->hazard);
    } else {
        printf("adjacent traffic does not reach it");
    }
    printf("</text>\n");
}

static void print_titles(void)
{
    char begin[BARRIER_HELP_TEXT_MAX];
    road_text(road.begin, begin);
    printf("  <title>Hazards and the approaches of their adjacent traffic</title>\n");
    printf("  <text x=\"20\" y=\"24\" font-size=\"16\">Hazards and the approaches of their adjacent "
           "traffic</text>\n");
    printf("  <text x=\"20\" y=\"44\" fill=\"#52606d\">Plan view, not to scale across. Each approach is "
           "drawn as if its hazard stood alone: this is no schedule.</text>\n");
    if (kilometres)
        printf("  <text x=\"20\" y=\"62\" fill=\"#52606d\">Corners: station, and offset in metres from "
               "the travelled-way edge.</text>\n");
    else
        printf("  <text x=\"20\" y=\"62\" fill=\"#52606d\">Corners in metres from sheet corner (%s, "
               "0.000), the road&#8217;s begin.</text>\n",
               begin);
}

static void print_picture(void)
{
    const struct frame frame = frame_of_job();
    printf("<svg xmlns=\"http://www.w3.org/2000/svg\" width=\"%.0f\" height=\"%.1f\" "
           "viewBox=\"0 0 %.0f %.1f\" font-family=\"Helvetica, Arial, sans-serif\" font-size=\"13\" "
           "fill=\"#1f2933\">\n",
           frame.width, frame.height, frame.width, frame.height);
    print_rect(0, 0, frame.width, frame.height, "#ffffff");
    print_titles();
    print_road(&frame);
    for (size_t i = 0; i < job.count; i++)
        print_hazard(&frame, i);
    for (size_t i = 0; i < job.count; i++)
        print_numbers(&frame, i);
    printf("</svg>\n");
}

/* The file to read, in *path; 0 where the command is read, else the status. */
static int read_command(int argc, char **argv, const char **path)
{
    int files = 0;
    for (int i = 1; i < argc; i++) {
        if (strcmp(argv[i], "--stations") == 0) {
            const char *value = ++i < argc ? argv[i] : "nothing";
            kilometres = strcmp(value, "km") == 0;
            if (!kilometres && strcmp(value, "metres") != 0)
                return job_misused(usage, "stations are km or metres, and not", value);
        } else if (argv[i][0] == '-' && argv[i][1] != '\0') {
            return job_misused(usage, "no such option", argv[i]);
        } else if (files++ > 0) {
            return job_misused(usage, "one file is read, and not this one too", argv[i]);
        } else {
            *path = argv[i];
        }
    }
    return 0;
}

int main(int argc, char **argv)
{
    const char *path = NULL;
    job_tool = "corners";
    for (int i = 1; i < argc; i++) {
        if (strcmp(argv[i], "--help") == 0) {
            printf("%sDraws the hazards of a job, as text or in bytes, and their approaches as SVG.\n"
                   "Reads FILE, or standard input.\n",
                   usage);
            return job_written(0);
        }
    }
    if (read_command(argc, argv, &path) != 0)
        return 2;
    job_from_either(path);
    /* 14 comes last: it says that the job is accepted and has no such hazard,
       or one that is not reached. */
    const barrier_corners_reply tried = barrier_corners(job.bytes, job.length, 0, 0, 0);
    if (tried.number != BARRIER_DONE && tried.number != BARRIER_NO_APPROACH)
        return job_refused(BARRIER_HELP_CORNERS, tried.number, tried.value);
    if (!job_know(&road))
        job_stop_whole("the job is accepted, and cannot be read");
    ask_corners();
    print_picture();
    return job_written(0);
}
