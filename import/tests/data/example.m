% Values of example.mdl.
Ts = 1/100;            % period in seconds
Kp = 2.5;
umax = 2^6;
T = fixdt(1, 16, 8);
