procedure Main_ is begin null; end;
