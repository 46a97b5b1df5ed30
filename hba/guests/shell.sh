# A shell, after which the machine is switched off.
setsid cttyhack sh
poweroff -f
