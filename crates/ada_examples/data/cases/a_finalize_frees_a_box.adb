with Ada.Finalization; with Ada.Unchecked_Deallocation;
procedure Main is
   type Box is new Ada.Finalization.Limited_Controlled with record Number : Integer := 0; end record;
   overriding procedure Finalize (Object : in out Box);
   type Box_Link is access Box;
   procedure Free_Box is new Ada.Unchecked_Deallocation (Box, Box_Link);
   type Chest is new Ada.Finalization.Limited_Controlled with record Item : Box_Link; end record;
   overriding procedure Finalize (Object : in out Chest);
   overriding procedure Finalize (Object : in out Box) is
   begin
      Object.Number := 0;
   end Finalize;
   overriding procedure Finalize (Object : in out Chest) is
   begin
      Free_Box (Object.Item);
   end Finalize;
   C : Chest;
begin
   C.Item := new Box;
end Main;
