with Ada.Finalization; with Ada.Text_IO; with Ada.Unchecked_Deallocation;
procedure Main is
   type Cell is record Value : Integer := 7; end record;
   type Link is access Cell;
   type Holder is new Ada.Finalization.Limited_Controlled with record Held : Link; end record;
   overriding procedure Initialize (Object : in out Holder);
   overriding procedure Finalize (Object : in out Holder);
   procedure Free is new Ada.Unchecked_Deallocation (Cell, Link);
   procedure Make (L : in out Link) is
   begin
      L := new Cell;
   exception
      when Storage_Error => null;
   end Make;
   overriding procedure Finalize (Object : in out Holder) is
   begin
      Free (Object.Held);
   end Finalize;
   overriding procedure Initialize (Object : in out Holder) is
      Made : Link;
   begin
      Make (Made);
      Object.Held := Made;
   end Initialize;
   H : Holder;
begin
   Ada.Text_IO.Put_Line (Integer'Image (H.Held.Value));
end Main;
