procedure P is overriding procedure Q is new F (A, B); begin null; end;
