procedure Main is N : Integer; begin null; end Main;
