/* The numbers that calls share: the version, what a call returns, the ids, actions and states of units, and the places, answers, codes and
 * log entries of readers. The other headers include this file. */
#ifndef CDF_NUMBERS_H
#define CDF_NUMBERS_H

#include <stddef.h>
#include <stdint.h>

#ifdef __cplusplus
extern "C" {
#endif

/* The version of the numbers in these files. A place may be copied, stored and sent, but it does not outlive its version: in another
 * one the states, or the slots of a place, may have other numbers. So store the version with a place, and start anew where
 * it is another. */
#define CDF_VERSION 2

/* Returns the version of the archive: CDF_VERSION, if the archive and these files belong together. */
uint64_t cdf_version(void);

/* What a call returns. Those of the rules, 3 to 10, come with an offset where a stream is read: where in it the rule is broken, the
 * unit's start, and beside CDF_ERR_DATA the first byte that offends. So do 19 and 20. */
#define CDF_OK 0                 /* done */
#define CDF_END 1                /* no unit is left to hand out */
#define CDF_ERR_UNFIT 2          /* the place cannot belong to these bytes, or to a buffer of this length */
#define CDF_ERR_SHORT 3          /* fewer bytes are left than a prefix has */
#define CDF_ERR_MARK 4           /* a unit does not begin with the mark CD F1 */
#define CDF_ERR_LENGTH 5         /* a length is too small, or more than what is left; of the root: not all of it */
#define CDF_ERR_ID 6             /* the id is not one of 1 to 14 */
#define CDF_ERR_PLACE 7          /* a unit may not stand here */
#define CDF_ERR_ACTION 8         /* the action is not allowed for this id */
#define CDF_ERR_DATA 9           /* the unit's own data are not of the form that its id asks */
#define CDF_ERR_INCOMPLETE 10    /* a unit ends before it has all that it must have; the offset is its start */
#define CDF_ERR_NOTHING 11       /* there is nothing to read on from, to skip, to take or to repeat */
#define CDF_ERR_NO_ROOM 12       /* the log, the list, the text or the buffer is too short */
#define CDF_ERR_TOO_LONG 13      /* a stream would be longer than 65,535 bytes */
#define CDF_ERR_BAD_GROUP 14     /* what was to be added is no group that the check accepts */
#define CDF_ERR_NOT_FOUND 15     /* neither stream has the field that is looked up */
#define CDF_ERR_NOTHING_KEPT 16  /* nothing in a broken group can be kept */
#define CDF_ERR_MANY_RUNS 17     /* of a broken group more than 64 runs of bytes would be dropped */
#define CDF_ERR_MANY_KEYS 18     /* more than 256 templates of a group have temporary keys */
#define CDF_ERR_DOUBLED 19       /* a template has the name and the temporary key of an earlier one; the offset is its start */
#define CDF_ERR_UNRESOLVED 20    /* no earlier template has the name and the temporary key of an entity key; the offset is its start */
#define CDF_ERR_MANY_REQUESTS 21 /* a list has more than 512 requests */

/* The ids of units. */
#define CDF_ID_STREAM 1             /* EDMM stream: a root */
#define CDF_ID_CALL 2               /* function call */
#define CDF_ID_PARAMETER 3          /* parameter of a call */
#define CDF_ID_ER_GROUP 4           /* E/R data group: a root, or in an EDMM stream */
#define CDF_ID_TEMPLATE 5           /* template */
#define CDF_ID_TEMPORARY_KEY 6      /* temporary key: a number of four bytes */
#define CDF_ID_TEMPLATE_KEY 7       /* template key: a text */
#define CDF_ID_FIELD 8              /* field of a template */
#define CDF_ID_RELATION 9           /* relation */
#define CDF_ID_ORDERED_RELATION 10  /* ordered relation */
#define CDF_ID_ENTITY_KEY 11        /* entity key: the source or the target of a relation */
#define CDF_ID_RELATION_KEY 12      /* relation key: likewise */
#define CDF_ID_FILE_GROUP 13        /* file data group: a root, or in an EDMM stream */
#define CDF_ID_LINE 14              /* line of a file */

/* The actions of units. Templates and fields have one of the last four; a relation is created, read or deleted, an ordered one created
 * or updated; all others have none. */
#define CDF_ACTION_NONE 0
#define CDF_ACTION_CREATE 1
#define CDF_ACTION_READ 2
#define CDF_ACTION_UPDATE 3
#define CDF_ACTION_DELETE 4

/* The states of an open unit in a place: what it is, and what it has had. */
#define CDF_STATE_STREAM_NEW 1          /* an EDMM stream that has had nothing */
#define CDF_STATE_STREAM_CALL 2         /* whose last unit was a call */
#define CDF_STATE_STREAM_GROUP 3        /* whose last unit was a group */
#define CDF_STATE_STREAM_SKIPPED 4      /* that was skipped */
#define CDF_STATE_ER_NEW 5              /* an E/R data group that has had nothing */
#define CDF_STATE_ER_DATA 6             /* that has had templates or relations */
#define CDF_STATE_ER_SKIPPED 7          /* that was skipped or taken */
#define CDF_STATE_FILE_NEW 8            /* a file data group that has had nothing */
#define CDF_STATE_FILE_LINES 9          /* that has had lines */
#define CDF_STATE_FILE_SKIPPED 10       /* that was skipped or taken */
#define CDF_STATE_CALL_NEW 11           /* a function call that has had nothing */
#define CDF_STATE_CALL_PARAMETERS 12    /* that has had parameters */
#define CDF_STATE_CALL_SKIPPED 13       /* that was skipped */
#define CDF_STATE_TEMPLATE_NEW 14       /* a template that has had nothing */
#define CDF_STATE_TEMPLATE_TEMPORARY 15 /* that has had its temporary key */
#define CDF_STATE_TEMPLATE_KEYS 16      /* that has had template keys */
#define CDF_STATE_TEMPLATE_FIELDS 17    /* that has had a key or keys, and fields */
#define CDF_STATE_TEMPLATE_SKIPPED 18   /* that was skipped */
#define CDF_STATE_RELATION_NEW 19       /* a relation that has had nothing */
#define CDF_STATE_RELATION_SOURCE 20    /* that has had its source */
#define CDF_STATE_RELATION_TARGET 21    /* that has had source and target */
#define CDF_STATE_RELATION_SKIPPED 22   /* that was skipped */
#define CDF_STATE_ORDERED_NEW 23        /* an ordered relation that has had nothing */
#define CDF_STATE_ORDERED_SOURCE 24     /* that has had its source */
#define CDF_STATE_ORDERED_TARGET 25     /* that has had source and target */
#define CDF_STATE_ORDERED_SKIPPED 26    /* that was skipped */
#define CDF_STATE_ENTITY_NEW 27         /* an entity key that has had nothing */
#define CDF_STATE_ENTITY_TEMPORARY 28   /* that has had its temporary key */
#define CDF_STATE_ENTITY_KEYS 29        /* that has had template keys */
#define CDF_STATE_ENTITY_SKIPPED 30     /* that was skipped */

/* The place of a reader: 25 numbers that the caller holds; copy it to come back to it. Fill it by a start. A place with the count 0 is
 * empty, whatever else it holds. What stands in the slots of units that the count does not reach, their ranks too, is free: it means
 * nothing, and after a call it may be anything.
 *
 * Every unit has a depth, 1 for the root and one more inside each unit around it, and a rank: how many units stand before it directly
 * in the same unit, so 0 for the first, and for the root. A unit that was skipped or taken counts once, with all that is in it. A place
 * tells depths by its count, and keeps ranks: a place that a caller made belongs to no bytes if six times the rank of an open unit, or of
 * the last unit, is more than the position. */
#define CDF_PLACE_NUMBERS 25
#define CDF_PLACE_POSITION 0    /* where reading goes on */
#define CDF_PLACE_COUNT 1       /* how many units are open, 0 to 4 */
#define CDF_PLACE_INNERMOST 2   /* state, start and end of the innermost open unit */
#define CDF_PLACE_OUTER 5       /* the same of the others, from the root inwards: three times three numbers */
#define CDF_PLACE_LAST 14       /* of the unit that was handed out last: id, action, start, own end, end */
#define CDF_PLACE_FLAG 19       /* not 0: the last unit may still be skipped or taken; it is written as 1 or 0 */
#define CDF_PLACE_RANKS 20      /* the ranks of the open units, slot by slot: the innermost, then the others from the root inwards */
#define CDF_PLACE_LAST_RANK 24  /* the rank of the unit that was handed out last */

/* What a call answers beside its number: 10 numbers, zeros where there is nothing to say. They are written at each call. A unit is
 * handed out by a start, by NEXT and by PREVIOUS where they return 0; beside any other number, and by the other calls, the unit's
 * numbers are zeros, depth and rank too. */
#define CDF_ANSWER_NUMBERS 10
#define CDF_ANSWER_OFFSET 0         /* where a rule is broken */
#define CDF_ANSWER_ID 1             /* the unit that is handed out: its id, */
#define CDF_ANSWER_ACTION 2         /* its action, */
#define CDF_ANSWER_START 3          /* where it starts, */
#define CDF_ANSWER_OWN_END 4        /* where its own data end, and units nested in it begin, */
#define CDF_ANSWER_END 5            /* and where it ends */
#define CDF_ANSWER_PART_START 6     /* the part that cdf_get_stream takes: where it starts in the stream, */
#define CDF_ANSWER_PART_LENGTH 7    /* and how many bytes it has */
#define CDF_ANSWER_DEPTH 8          /* how deep the unit lies, 1 to 5, */
#define CDF_ANSWER_RANK 9           /* and its rank among those directly in the same unit, from 0 on */

/* The codes of a reader's calls, for a run of them. */
#define CDF_CALL_START 1
#define CDF_CALL_NEXT 2
#define CDF_CALL_SKIP 3
#define CDF_CALL_GET_STREAM 4
#define CDF_CALL_PREVIOUS 5

/* The entry of a call in the log is 11 numbers, zeros where there is nothing to say. */
#define CDF_ENTRY_NUMBERS 11
#define CDF_ENTRY_NUMBER 0          /* what the call returned */
#define CDF_ENTRY_OFFSET 1
#define CDF_ENTRY_PART_START 2
#define CDF_ENTRY_PART_LENGTH 3
#define CDF_ENTRY_ID 4
#define CDF_ENTRY_ACTION 5
#define CDF_ENTRY_START 6
#define CDF_ENTRY_OWN_END 7
#define CDF_ENTRY_END 8
#define CDF_ENTRY_DEPTH 9
#define CDF_ENTRY_RANK 10

#ifdef __cplusplus
}
#endif

#endif
