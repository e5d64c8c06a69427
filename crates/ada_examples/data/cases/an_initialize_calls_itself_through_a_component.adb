with Ada.Finalization;
procedure Main is
   type Box is new Ada.Finalization.Limited_Controlled with record Value : Integer := 0; end record;
   overriding procedure Initialize (Object : in out Box);
   type Shelf is record Number : Integer := 0; First : Box; end record;
   type Room is record Upper : Shelf; end record;
   overriding procedure Initialize (Object : in out Box) is
      R : Room;
   begin
      Object.Value := R.Upper.First.Value;
   end Initialize;
begin
   null;
end Main;
