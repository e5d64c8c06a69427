procedure Main_1 is begin null; end;
