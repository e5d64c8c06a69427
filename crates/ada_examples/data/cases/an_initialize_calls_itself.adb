with Ada.Finalization;
procedure Main is
   type Box;
   type Link is access Box;
   type Box is new Ada.Finalization.Controlled with record Value : Integer := 0; end record;
   overriding procedure Initialize (Object : in out Box);
   overriding procedure Initialize (Object : in out Box) is
      L : Link;
   begin
      L := new Box;
   end Initialize;
   L : Link;
begin
   L := new Box;
end Main;
