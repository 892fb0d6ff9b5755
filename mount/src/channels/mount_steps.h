/* What the helper tells the server of a mount of cgroup2 that a program makes step by step: fsopen, fsconfig, fsmount, fspick. The
   program's descriptor of it is an open file of the mount, so its state ends with its last copy. */
#ifndef MOUNT_STEPS_H
#define MOUNT_STEPS_H

/* SET: an option; NAME_SOURCE: its source; CREATE_ALONE: only if there is no such file system; PICK: it is of one that is mounted. */
enum mount_step { SET, NAME_SOURCE, CREATE, CREATE_ALONE, RECONFIGURE, MOUNT, PICK };

/* It is written to the file. Nothing else is. The mark tells it from a program's own write to such
   a file, which is refused. */
struct mount_step_message {
	char mark[15];
	unsigned char step;
};

#define MOUNT_STEP_MARK "makhloeum: step"

#endif
